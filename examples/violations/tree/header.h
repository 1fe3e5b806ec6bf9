int header
