"""What the tests of the tools of a move share: configurations, captures, and proxies that are talked to."""
