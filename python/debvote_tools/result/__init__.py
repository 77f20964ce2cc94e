"""The result: counting anew, the page, and the folder that is published."""
