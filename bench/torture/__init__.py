"""What the program does where the system refuses it something, and with files that nobody would write."""
