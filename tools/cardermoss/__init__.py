"""What the commands of tools/ share: drawing files, their text, links that the planner makes, the graph, what its pairs cost,
refusals in words, pictures."""
