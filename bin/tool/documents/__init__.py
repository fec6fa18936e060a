"""The check of the documents."""
