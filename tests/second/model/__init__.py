"""The rules of document 01, with requests T-01 and T-02 of document 02, as a readable program."""
