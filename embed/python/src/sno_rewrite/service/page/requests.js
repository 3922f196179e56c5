// Requests to the service, with the token if there is one.

import { emit } from "./state.js";

const KEY = "nomyake token";
const JSON_TYPE = { "Content-Type": "application/json" };

export const tokenOf = () => sessionStorage.getItem(KEY);

export function keepToken(token) {
  sessionStorage.setItem(KEY, token);
}

export async function request(path, options = {}) {
  const token = tokenOf();
  const headers = token ? { Authorization: `Bearer ${token}`, ...options.headers } : { ...options.headers };
  const response = await fetch(path, { ...options, headers });
  if (response.status === 401) emit("unauthorized");
  return response;
}

export const post = (path, members, headers = {}) =>
  request(path, { method: "POST", body: JSON.stringify(members), headers: { ...JSON_TYPE, ...headers } });

export const pathOf = (name, version) => `/texts/${encodeURIComponent(name)}${version === undefined ? "" : `?at=${version}`}`;

export const versionIn = (response) => Number(response.headers.get("ETag").slice(1, -1));

// A key for one press: the service performs a statement once, however often it comes with the same key.
export function freshKey() {
  return [...crypto.getRandomValues(new Uint8Array(12))].map((byte) => byte.toString(16).padStart(2, "0")).join("");
}
