// Ethernet, ARP, IPv4 and TCP, as bytes.
"use strict";

const GUEST = {ip: [10, 0, 0, 1], mac: [2, 0, 0, 0, 0, 1]};
const CLIENT = {ip: [10, 0, 0, 2], mac: [2, 0, 0, 0, 1, 1]};
const FIN = 1, SYN = 2, RST = 4, PSH = 8, ACK = 16;
const ARP = 0x806, IPV4 = 0x800, TCP = 6;

const bytesOf16 = n => [n >> 8 & 255, n & 255];
const bytesOf32 = n => [...bytesOf16(n >>> 16), ...bytesOf16(n)];
const number16 = (bytes, at) => bytes[at] << 8 | bytes[at + 1];
const number32 = (bytes, at) => number16(bytes, at) * 65536 + number16(bytes, at + 2);
const hexOf = bytes => Array.from(bytes, byte => byte.toString(16).padStart(2, "0")).join("");
const bytesOfHex = hex => Uint8Array.from({length: hex.length / 2}, (_, at) => parseInt(hex.slice(2 * at, 2 * at + 2), 16));
const textOf = bytes => new TextDecoder().decode(bytes);
const bytesOfText = text => [...new TextEncoder().encode(text)];

function checksum(bytes) {
    let sum = 0;
    for (let at = 0; at < bytes.length; at += 2) sum += bytes[at] << 8 | (bytes[at + 1] ?? 0);
    while (sum > 65535) sum = (sum & 65535) + (sum >> 16);
    return ~sum & 65535;
}

const ethernet = (kind, payload) => [...GUEST.mac, ...CLIENT.mac, ...bytesOf16(kind), ...payload];

function arpFrame(operation) {
    const target = operation === 1 ? [0, 0, 0, 0, 0, 0] : GUEST.mac;
    const frame = ethernet(ARP, [0, 1, 8, 0, 6, 4, 0, operation, ...CLIENT.mac, ...CLIENT.ip, ...target, ...GUEST.ip]);
    if (operation === 1) frame.splice(0, 6, 255, 255, 255, 255, 255, 255);
    return frame;
}

const isArpRequest = frame => number16(frame, 12) === ARP && frame[21] === 1 && frame[41] === CLIENT.ip[3];

// A segment from the client: {port, number, acknowledged, flags, data, options}.
function tcpFrame({port, number, acknowledged, flags, data, options}) {
    const segment = [...bytesOf16(port), ...bytesOf16(80), ...bytesOf32(number), ...bytesOf32(acknowledged),
        (20 + options.length) / 4 << 4, flags, 255, 255, 0, 0, 0, 0, ...options, ...data];
    const pseudo = [...CLIENT.ip, ...GUEST.ip, 0, TCP, ...bytesOf16(segment.length)];
    segment.splice(16, 2, ...bytesOf16(checksum([...pseudo, ...segment])));
    const packet = [0x45, 0, ...bytesOf16(20 + segment.length), 0, 0, 0x40, 0, 64, TCP, 0, 0, ...CLIENT.ip, ...GUEST.ip];
    packet.splice(10, 2, ...bytesOf16(checksum(packet)));
    return ethernet(IPV4, [...packet, ...segment]);
}

// The segment in a frame to the client, or null.
function segmentOf(frame) {
    if (number16(frame, 12) !== IPV4 || frame[23] !== TCP) return null;
    const segment = frame.subarray(14 + (frame[14] & 15) * 4, 14 + number16(frame, 16));
    return {port: number16(segment, 2), number: number32(segment, 4), acknowledged: number32(segment, 8), flags: segment[13],
        data: segment.subarray((segment[12] >> 4) * 4)};
}
