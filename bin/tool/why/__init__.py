"""Reasons: why there is no plan, why a package is in it, why a version isn't, and what a refusal means.

The program's answer is proved. What stands below it is read off the files of the folder, and only explains."""
