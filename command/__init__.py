"""The command `channel`: pin list in; listing, board file, judgement and picture out."""
