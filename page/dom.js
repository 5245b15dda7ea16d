"use strict";
// Makes elements of the page. What comes from a file is always put in as text, never as markup.

const SVG = "http://www.w3.org/2000/svg";

const isNothing = it => it === null || it === undefined || it === false;

// Sets attributes, and listeners for those that are functions; what is nothing is left out.
function setAll(element, attributes) {
    for (const [name, value] of Object.entries(attributes)) {
        if (typeof value === "function") element.addEventListener(name, value);
        else if (!isNothing(value)) element.setAttribute(name, value === true ? "" : value);
    }
    return element;
}

function el(name, attributes = {}, ...content) {
    const element = setAll(document.createElement(name), attributes);
    element.append(...content.filter(it => !isNothing(it)));
    return element;
}

function svgEl(name, attributes = {}, ...content) {
    const element = setAll(document.createElementNS(SVG, name), attributes);
    element.append(...content.filter(it => !isNothing(it)));
    return element;
}

const button = (words, click, attributes = {}) => el("button", { type: "button", click, ...attributes }, words);
const toolbar = (label, ...content) => el("div", { class: "tools", role: "group", "aria-label": label }, ...content);

const byId = id => document.getElementById(id);

// Control characters, and those that turn the direction of what follows.
const STEERING = /[\u0000-\u001f\u007f-\u009f\u202a-\u202e\u2066-\u2069]/g;

// A label as one line: line breaks and tabs become spaces, and what would steer the display becomes U+FFFD.
function shown(label) {
    return label.replace(/[\t\n\r]+/g, " ").replace(STEERING, "\ufffd");
}

const grouped = number => number.toLocaleString("en");
const counted = (number, one, many) => `${grouped(number)} ${number === 1 ? one : many}`;

// Lets the page answer before long work goes on.
const breath = () => new Promise(resolve => setTimeout(resolve));
