"""Why a stream didn't come, came late or came twice: what hosts, routers and settings did to it. `notes` and `mistakes`
say what is odd.
"""
