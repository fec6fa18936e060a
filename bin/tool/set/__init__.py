"""`cabal-plan set`: plans many packages with many compilers and settings."""
