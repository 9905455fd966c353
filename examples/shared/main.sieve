require ["include", "variables"];

# The site's scripts come first.
set "global.lists" "Lists";
include :global "spam";
include :global "lists";

# One's own, if they are there.
include :optional "friends";
include :optional :once "holiday";
