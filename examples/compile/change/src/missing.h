int found
