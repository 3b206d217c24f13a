"""The run as a page in which people step it: a server beside the program, and the page's code."""
