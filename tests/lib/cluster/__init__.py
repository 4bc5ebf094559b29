"""What the tests of the recipes share: machines in namespaces, access servers and a home server, and the events of a cluster."""
