"""The screen of the workbench: a server on this machine, for a browser."""
