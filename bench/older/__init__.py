"""Older headers, as Cabal reads them and as a rewriter puts them."""
