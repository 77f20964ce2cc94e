"""What is made around debvote: the election in one folder, and the result for a web site.

Nothing here counts, and nothing judges a ballot: whether a line is valid, what it replies, who has
a ballot and what the sheet is, all of that `debvote` is asked, and its answers are read by
docs/FORMATS.md.
"""

# the version of debvote, with which these programs come in one package
VERSION = "3.0.0"
