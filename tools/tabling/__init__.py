"""The pages that `tools/tables` makes from the sources: public functions with their clauses, and sections of RFCs with what names them."""
