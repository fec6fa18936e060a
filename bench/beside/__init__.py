"""Two planners side by side."""
