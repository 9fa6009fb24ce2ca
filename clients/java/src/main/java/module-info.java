/** Values of Othello positions by the proved search itself, or from a server of {@code othello serve}. */
module coluwen {
  exports coluwen;
}
