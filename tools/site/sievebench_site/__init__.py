"""Tests a site's Sieve filters over sample mails, by the program sievebench."""
