# Nothing is done: the mail is kept.
