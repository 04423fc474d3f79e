"""What the tools are made of: modules that they share, and in commands/ the text of each command of tools/."""
