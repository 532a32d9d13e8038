"""The words of the program, and what is made of them: manual pages, completion, highlighting."""
