# Mail over one megabyte and advertisements go; the rest is kept.
if anyof (size :over 1M, header :contains "Subject" "special offer") {
    discard;
    stop;
}
keep;
