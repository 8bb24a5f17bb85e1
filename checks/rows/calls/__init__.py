"""The rows of crates/test_memory: what a line gives to its call, and how the outcome that the model has of it is printed."""
