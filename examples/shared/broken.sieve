require "include";
include :optional "friends";
include :global "list";
