"""Views of plans: a tree, a difference, what is outdated, and cabal's form."""
