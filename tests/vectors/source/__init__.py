"""What ../make makes the vectors of: a module for each file, and three that they share."""
