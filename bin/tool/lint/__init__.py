"""What both planners pass over in silence in the project's own files."""
