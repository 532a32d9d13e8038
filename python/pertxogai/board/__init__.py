"""The drawing board in the browser: `./pertxogai page`.

The document is the drawing's text. The browser shows it and asks this side for everything: what
the text says, what the program judges of it, and the text that an edit makes of it. Nothing of
the page decides.
"""
