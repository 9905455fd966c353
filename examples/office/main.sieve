require ["fileinto", "envelope", "variables", "imap4flags", "include"];

# The site's rules come first, where there are some; they may end the run.
include :global :optional "spam";

# Mail of a list goes to a box of its own, by the list's name.
if header :matches "List-Id" "*<*.lists.example>" {
    set :upperfirst "list" "${2}";
    fileinto "Lists/${list}";
    stop;
}

/* What the office writes is flagged. Where it is urgent, or the office's
   own program sends it, it goes on to the pager too. */
if address :domain "From" ["office.example", "partner.example"] {
    addflag "\\Flagged";
    if anyof (header :contains "Subject" "urgent",
              envelope :localpart "from" "alarm") {
        redirect "pager@phone.example";
        keep;
    }
} elsif allof (size :over 1M, not exists "In-Reply-To") {
    discard;
}
