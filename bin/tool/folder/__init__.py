"""`cabal-plan folder`: from a cabal project to a folder to plan in."""
