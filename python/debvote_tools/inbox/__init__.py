"""What comes: lines and letters, and what becomes of each.

A letter meets these modules, in this order; `take_letters` in `taking.py` leads it:

    given_files             files, folders and standard input are read, once and whole; or
    box_records             the web box is asked, and each of its records is a letter
    mailbox                 a file is split into letters
    mime, letter, html      its head and its parts; its sender, its time and its lines
    signature               what gpgv says of it, if letters have to be signed
    letter_grammar          what each of its lines is
    letter_text             which of them are ballots, and whether one is all that it says
    letter_lines            debvote says which are valid; the book keeps what was read
    rules                   why it does not go in by itself
    judging                 what becomes of it, beside other letters and ballots
    reasons, letter_words   what is said of it
    entering                its ballot gets an envelope
    fates                   what became of both, as a receipt says it

Lines are read by `lines.py` and `vote.py`, in which debvote is asked about them.
"""
