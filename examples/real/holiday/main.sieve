# The notice of a holiday, from the first to the twenty-first of August.
require ["date", "relational", "vacation", "variables"];

if allof (currentdate :value "ge" "date" "2026-08-01",
          currentdate :value "le" "date" "2026-08-21",
          not header :contains ["Precedence", "Auto-Submitted"] ["bulk", "list", "auto-"],
          not exists "List-Id") {
    if header :matches "Subject" "*" {
        set "subject" "${1}";
    }
    vacation :days 7 :subject "Away: ${subject}" :addresses ["ada@office.example", "ada.lovelace@office.example"]
text:
I'm away until August 21st. What is urgent goes to
charles@office.example.
.
;
}
