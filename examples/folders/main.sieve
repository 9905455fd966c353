# Jane's own filter.
if header :is "X-Priority" "5" {
    discard;
}
