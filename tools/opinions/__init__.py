"""What the scripts share that bring models to other model checkers and back, for second opinions."""
