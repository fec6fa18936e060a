"""Pictures of plans and conflicts, as DOT."""
