// The rules of `vtmap import` for files that the page reads, and its words: by vtmap/client/refusals.py, which writes this file.
export const COLUMNS = [["lon", "lat"], ["lng", "lat"], ["long", "lat"], ["longitude", "latitude"]];
export const NUMBER = "^(?:[+-]?([0-9]+([.,][0-9]*)?|[.,][0-9]+)([eE][+-]?[0-9]+)?)$";
export const MAX_CHANGES = 64;
export const MAX_BODY = 65536;
export const WORDS = {
    heights: "heights (Z) are dropped",
    dropped: "the field {name} is dropped: {what} is no value of a tag",
    list: "a list or an object",
    nowhere: "they have no geometry, and aren't put",
    noKind: "a {kind} is no kind of geometry that a feature has",
    outside: "a point is outside of the world (180 degrees east and west, 85.05 north and south)",
    twoNumbers: "{told}: two numbers are needed, as 7.25 or 7,25, without separators of thousands",
};
