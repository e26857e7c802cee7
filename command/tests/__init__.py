"""Tests of the command. Each names the slip that it shuts out."""
