redirect "deputy@example.org";
