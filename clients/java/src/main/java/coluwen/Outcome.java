package coluwen;

/** Of one of many questions its number from 0, and its result or its fault; the other is null. */
public record Outcome<T>(int index, T question, Result result, Throwable fault) {}
