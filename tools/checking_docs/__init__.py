"""What tools/check-docs checks of the documents: names, contracts, definitions, tables of crates, links and prose."""
