"""The engine's side of the guest protocol, over frames."""
