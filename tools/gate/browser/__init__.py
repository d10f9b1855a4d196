"""The web page in a browser, as a user walks through it: a file for each subject."""
