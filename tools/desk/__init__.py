"""The modules of tools/claimdesk: a maker of claimrun's inputs and a viewer of its records."""
