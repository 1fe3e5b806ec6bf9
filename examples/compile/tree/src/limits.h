int limits
