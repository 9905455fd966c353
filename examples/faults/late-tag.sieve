# A tag stands before the strings.
if header "Subject" :contains "offer" {
    discard;
}
