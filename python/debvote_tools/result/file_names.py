"""The names of the files of a published folder."""

# a plain web server shows a text that ends in .txt
POLL, BALLOTS, LATE, SHEET = "poll.toml", "ballots.txt", "late.txt", "sheet.txt"
STANDING, DATA, TABLE, PICTURE = "standing.txt", "result.json", "votes.csv", "picture.svg"
CLOSED, SEAL, LETTER = "closed.txt", "seal.txt", "letter.txt"
PAGE, CHECKSUMS = "index.html", "SHA256SUMS"
RECOUNT, SCRIPT, GUIDE = "recount.py", "recount.js", "READING-A-SHEET.md"
