"""What the tests of the ledger share: ledgers that are audited, and a program that writes them."""
