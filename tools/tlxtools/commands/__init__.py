"""The commands of tools/: NAME.py for tools/NAME, which runs its main()."""
