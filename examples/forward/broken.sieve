# A redirect has one address.
discard;
redirect "pager@phone.example, desk@office.example";
