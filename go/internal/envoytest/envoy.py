"""A client for tests that asks as Envoy does, by gRPC's own client and protobuf's own reader and writer.

    envoy.py ADDRESS    as unix:/path or 127.0.0.1:PORT

Each line of standard input is a JSON object with the headers of a request, and with the address and the principal of who sent it. For each it calls
envoy.service.auth.v3.Authorization/Check, and prints a JSON object: the CheckResponse, or the code of the call that failed.
The messages have the fields of Envoy's public API that are used here, under their numbers there.
"""

import json
import sys

import grpc
from google.protobuf import descriptor_pb2, descriptor_pool, json_format, message_factory

TYPES = descriptor_pb2.FieldDescriptorProto
NUMBER, TEXT, MANY = TYPES.TYPE_INT32, TYPES.TYPE_STRING, TYPES.LABEL_REPEATED

# message: its fields as name, number, type or message, and whether it is repeated.
MESSAGES = {
    "CheckRequest": [("attributes", 1, "AttributeContext")],
    "AttributeContext": [("source", 1, "Peer"), ("destination", 2, "Peer"), ("request", 4, "Request")],
    "Peer": [("address", 1, "Address"), ("service", 2, TEXT), ("principal", 4, TEXT)],
    "Address": [("socket_address", 1, "SocketAddress")],
    "SocketAddress": [("protocol", 1, NUMBER), ("address", 2, TEXT), ("port_value", 3, NUMBER)],
    "Request": [("http", 2, "HttpRequest")],
    "HttpRequest": [("id", 1, TEXT), ("method", 2, TEXT), ("headers", 3, "Entry", MANY), ("path", 4, TEXT), ("host", 5, TEXT), ("body", 11, TEXT)],
    "Entry": [("key", 1, TEXT), ("value", 2, TEXT)],
    "CheckResponse": [("status", 1, "Status"), ("denied_response", 2, "Denied"), ("ok_response", 3, "Ok")],
    "Status": [("code", 1, NUMBER), ("message", 2, TEXT)],
    "Denied": [("status", 1, "HttpStatus"), ("headers", 2, "Option", MANY), ("body", 3, TEXT)],
    "HttpStatus": [("code", 1, NUMBER)],
    "Ok": [("headers", 2, "Option", MANY), ("headers_to_remove", 5, TEXT, MANY)],
    "Option": [("header", 1, "Header"), ("append_action", 3, NUMBER)],
    "Header": [("key", 1, TEXT), ("value", 2, TEXT)],
}


def classes():
    """The classes of the messages, by their names."""
    file = descriptor_pb2.FileDescriptorProto(name="ext_authz.proto", syntax="proto3", package="auth")
    for name, fields in MESSAGES.items():
        message = file.message_type.add(name=name)
        for field, number, kind, *label in fields:
            one = message.field.add(name=field, number=number, label=label[0] if label else TYPES.LABEL_OPTIONAL)
            if isinstance(kind, str):
                one.type, one.type_name = TYPES.TYPE_MESSAGE, f".auth.{kind}"
            else:
                one.type = kind
    pool = descriptor_pool.DescriptorPool()
    pool.Add(file)
    factory = message_factory.MessageFactory(pool)
    return {name: factory.GetPrototype(pool.FindMessageTypeByName(f"auth.{name}")) for name in MESSAGES}


CLASSES = classes()


def asked(headers, body, peer, principal):
    """The CheckRequest for a request with these headers, of a client with this address. (A map is written as entries.)"""
    request = CLASSES["CheckRequest"]()
    request.attributes.source.principal = principal
    if peer:
        request.attributes.source.address.socket_address.address = peer
        request.attributes.source.address.socket_address.port_value = 40000
    http = request.attributes.request.http
    http.id, http.method, http.path, http.host, http.body = "7", "GET", "/a?b", "ledger", body
    for key, value in headers:
        http.headers.add(key=key, value=value)
    return request


def main():
    channel = grpc.insecure_channel(sys.argv[1], options=[("grpc.enable_http_proxy", 0)])
    check = channel.unary_unary(
        "/envoy.service.auth.v3.Authorization/Check",
        request_serializer=CLASSES["CheckRequest"].SerializeToString,
        response_deserializer=CLASSES["CheckResponse"].FromString,
    )
    for line in sys.stdin:
        said = json.loads(line)
        try:
            request = asked(said["headers"], said.get("body", ""), said.get("peer", ""), said.get("principal", "spiffe://example.org/proxy"))
            answer = check(request, timeout=said.get("timeout", 30), wait_for_ready=True)
            told = json_format.MessageToDict(answer, preserving_proto_field_name=True)
        except grpc.RpcError as error:
            told = {"failed": error.code().name, "why": error.details()}
        print(json.dumps(told), flush=True)


main()
