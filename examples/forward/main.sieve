# Urgent mail of the office goes on to the pager, and is kept too.
if allof (address :domain "From" ["office.example", "partner.example"],
          header :contains ["Subject", "Keywords"] "urgent") {
    redirect "Pager <pager@phone.example>";
    redirect "pager@phone.example";
    keep;
}
