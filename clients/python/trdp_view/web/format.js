// How times and numbers are shown.

export function milliseconds(us) {
  if (us === null || us === undefined) {
    return "";
  }
  const ms = us / 1000;
  return ms >= 100000 ? `${Math.round(ms / 1000)} s` : `${ms < 10 ? ms.toFixed(2) : ms.toFixed(1)} ms`;
}

export function age(us) {
  const seconds = Math.max(0, us) / 1e6;
  if (seconds < 10) {
    return `${seconds.toFixed(1)} s`;
  }
  if (seconds < 600) {
    return `${Math.round(seconds)} s`;
  }
  return seconds < 36000 ? `${Math.round(seconds / 60)} min` : `${Math.round(seconds / 3600)} h`;
}

export function clock(us) {
  const moment = new Date(us / 1000);
  const two = (number) => String(number).padStart(2, "0");
  const part = String(Math.floor(us / 1000) % 1000).padStart(3, "0");
  return `${two(moment.getHours())}:${two(moment.getMinutes())}:${two(moment.getSeconds())}.${part}`;
}

export function sortable(address) {
  return address.split(".").map((part) => part.padStart(3, "0")).join(".");
}
